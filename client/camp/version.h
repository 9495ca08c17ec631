/* The version of camp: document 01, and of document 02 the requests up to this one. */
#ifndef CAMP_VERSION_H
#define CAMP_VERSION_H

#define CAMP_VERSION "1.10"

#endif
