"""What the scripts of deploy/ share: where a desk's files are, how they are read and judged, how a script ends."""
