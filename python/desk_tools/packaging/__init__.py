"""The Debian package: its files, manual pages, licences and receipt."""
