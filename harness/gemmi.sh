# gemmi, for the scripts that read with it: sourced by them. Sets `python` and a folder `work` that goes when the script ends.
# Debian's modules are for Debian's own Python, which need not be the first one.
python=/usr/bin/python3
work=$(mktemp -d) || exit 2
trap 'rm -rf "$work"' EXIT

has_gemmi() {
    "$python" -c 'import gemmi' 2>/dev/null
}

# Installs it by apt-get if it is missing, and tells why that failed.
if ! has_gemmi; then
    { apt-get update && apt-get install -y python3-gemmi; } >"$work/install" 2>&1 || tail -n 1 "$work/install"
fi
