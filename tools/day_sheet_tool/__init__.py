"""The modules of tools/sheet. Written from documents 01 and 02, they share no code with the board."""
