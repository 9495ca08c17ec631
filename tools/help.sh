# Sourced by the tools: -h or --help as the only argument prints the comment at the head of the tool.
if [ $# -eq 1 ] && { [ "$1" = -h ] || [ "$1" = --help ]; }; then
    sed -n '2,${/^#/!q; s/^# \{0,1\}//p;}' "$0"
    exit 0
fi
