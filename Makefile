# make install PREFIX=/usr/local: the desk, its programs, the library and its header (tools/install.py)
PREFIX = /usr/local

install:
	python3 tools/install.py "$(DESTDIR)$(PREFIX)"

.PHONY: install
