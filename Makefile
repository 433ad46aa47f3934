# What people type. PREFIX, or prefix, is where it is installed, DESTDIR a folder above it for packagers.
prefix = /usr/local
PREFIX = $(prefix)

all:
	@./pbfcut --version

check:
	@tests/run

prove:
	@./pbfcut --prove

install:
	@DESTDIR='$(DESTDIR)' ./install '$(PREFIX)'

uninstall:
	@DESTDIR='$(DESTDIR)' ./install --uninstall '$(PREFIX)'

.PHONY: all check prove install uninstall
