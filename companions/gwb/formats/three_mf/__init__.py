"""3MF, a zip of XML (core specification 1.3): `read` makes parts of a file, `write` writes a mesh."""
