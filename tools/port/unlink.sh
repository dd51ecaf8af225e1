#!/bin/sh
# At the top of the repository, before the kit's port.py, which stops at links: each link below crates/ and examples/ becomes a copy of its file.
find crates examples -name out -prune -o -type l -print | while read -r link; do
  cp --remove-destination "$(readlink -f "$link")" "$link" && echo "copied: $link"
done
