"""The desk for the people who sell watering hours: python around the proved programs. It reads files, puts answers into
words, tables, JSON and pictures, and decides nothing. The command `./desk` starts it at main.py."""

# CHANGELOG.md says what each brought
VERSION = "0.7"
