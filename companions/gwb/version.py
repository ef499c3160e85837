"""The version of the package: that of the file VERSION at the top of the repository."""

VERSION = '3.0.0'
