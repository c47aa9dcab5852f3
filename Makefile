# Installs the built program, the tools that are for users, the manual page, completion, and vim's syntax, below PREFIX:
#
#   make install PREFIX=$HOME/.local
#   make uninstall PREFIX=$HOME/.local
#
# DESTDIR goes before it, for a package. The program is proved and built first where it is missing or older than the sources.
# install/tools says which tools are for users. tools/check-install tries all of this.
#
# man finds the page where PREFIX/bin is on the path, and bash-completion its file below /usr, /usr/local and $HOME/.local.
# zsh and vim are told the folder, where it is none of theirs:
#
#   fpath=(PREFIX/share/zsh/site-functions $fpath)   in .zshrc, before compinit
#   set runtimepath^=PREFIX/share/vim/vimfiles       in .vimrc, before `filetype` and `syntax`

PREFIX ?= /usr/local
DESTDIR ?=

ROOT := $(DESTDIR)$(PREFIX)
LIB := $(ROOT)/lib/lardsim
SHARE := $(ROOT)/share
BASH := $(SHARE)/bash-completion/completions
ZSH := $(SHARE)/zsh/site-functions
VIM := $(SHARE)/vim/vimfiles
EXAMPLES := $(SHARE)/doc/lardsim/examples
TOOLS := $(shell awk '!/^\#/ && NF > 1 && $$2 != "-" { print $$1 }' install/tools)
LINKS := $(TOOLS:%=lardsim-%)
MODULES := $(wildcard tools/*.py tools/*.sh tools/*.lua tools/*/*.py)

.PHONY: all install uninstall
all:
	tools/build

# The tools look for the program where it stands beside them in the repository, so it has a link there.
install: all
	install -d $(ROOT)/bin $(LIB)/tools $(LIB)/crates/lardsim/out $(SHARE)/man/man1 $(BASH) $(ZSH) $(VIM)/syntax $(VIM)/ftdetect $(EXAMPLES)
	install crates/lardsim/out/lardsim $(ROOT)/bin/lardsim
	ln -sfn ../../../../../bin/lardsim $(LIB)/crates/lardsim/out/lardsim
	install $(TOOLS:%=tools/%) tools/build $(LIB)/tools
	for module in $(MODULES); do install -D -m 644 $$module $(LIB)/$$module || exit; done
	for tool in $(TOOLS); do ln -sfn ../lib/lardsim/tools/$$tool $(ROOT)/bin/lardsim-$$tool || exit; done
	install -m 644 docs/lardsim.1 $(SHARE)/man/man1
	install -m 644 install/completion.bash $(BASH)/lardsim
	for link in $(LINKS); do ln -sfn lardsim $(BASH)/$$link || exit; done
	install -m 644 install/completion.zsh $(ZSH)/_lardsim
	install -m 644 $(wildcard install/vim/syntax/*) $(VIM)/syntax
	install -m 644 $(wildcard install/vim/ftdetect/*) $(VIM)/ftdetect
	cp -R examples/. $(EXAMPLES)

uninstall:
	rm -f $(addprefix $(ROOT)/bin/,lardsim $(LINKS)) $(addprefix $(BASH)/,lardsim $(LINKS)) $(ZSH)/_lardsim $(SHARE)/man/man1/lardsim.1
	rm -f $(patsubst install/vim/%,$(VIM)/%,$(wildcard install/vim/*/*))
	rm -rf $(LIB) $(SHARE)/doc/lardsim
