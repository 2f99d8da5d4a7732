"""What the programs `worked` and `list` have to print, worked out from docs/SPEC.md, docs/FORMATS.md and the paper, never from a program.
"SPEC 4.3" names the section that something is written from."""
