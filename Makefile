# Installs the program, the shell `scenes`, pages of the manual, completions, and files for Vim. Nothing is proved or built here:
# the program is the one that `./explore --build` or the gate has built from these very sources, else the one in prebuilt/.
SHELL = bash
PREFIX = /usr/local
DESTDIR =
# Another program in the place of that one.
PROGRAM =
bin = $(DESTDIR)$(PREFIX)/bin
lib = $(DESTDIR)$(PREFIX)/lib/vezhundri
share = $(DESTDIR)$(PREFIX)/share
vim = $(share)/vim/vimfiles

all:
	@echo 'make install PREFIX=..   installs (PREFIX is $(PREFIX) if none is given)'
	@echo 'make uninstall PREFIX=.. takes away what was installed'
	@echo './explore --build        proves the program, and builds it'

install:
	install -d $(bin) $(lib)/scenes/loop/page $(share)/man/man1 $(share)/man/man5 $(share)/bash-completion/completions
	install -d $(vim)/syntax $(vim)/ftdetect $(vim)/compiler
	bash tools/install/program $(lib)/explore $(PROGRAM)
	install -m 755 tools/install/explore $(bin)/explore
	install -m 755 tools/scenes/scenes $(lib)/scenes/scenes
	install -m 644 tools/scenes/loop/*.py $(lib)/scenes/loop
	install -m 644 tools/scenes/loop/page/* $(lib)/scenes/loop/page
	install -m 644 docs/FAULTS.md tools/scenes/README.md $(lib)/scenes
	ln -sf ../lib/vezhundri/scenes/scenes $(bin)/scenes
	install -m 644 tools/install/explore.1 tools/install/scenes.1 $(share)/man/man1
	install -m 644 tools/install/explore-script.5 $(share)/man/man5
	install -m 644 tools/install/completion.bash $(share)/bash-completion/completions/explore
	ln -sf explore $(share)/bash-completion/completions/scenes
	install -m 644 tools/install/vim/syntax/*.vim $(vim)/syntax
	install -m 644 tools/install/vim/ftdetect/*.vim $(vim)/ftdetect
	install -m 644 tools/install/vim/compiler/*.vim $(vim)/compiler

uninstall:
	rm -rf $(lib)
	rm -f $(bin)/explore $(bin)/scenes $(share)/man/man1/explore.1 $(share)/man/man1/scenes.1 $(share)/man/man5/explore-script.5
	rm -f $(share)/bash-completion/completions/explore $(share)/bash-completion/completions/scenes
	rm -f $(vim)/syntax/explore.vim $(vim)/syntax/alloy.vim $(vim)/ftdetect/explore.vim $(vim)/compiler/scenes.vim

.PHONY: all install uninstall
