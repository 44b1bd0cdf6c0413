# make            builds the program; the first time this proves everything below it (README.md says how long that takes)
# make install    puts it, its tools, the client, manual pages, units and examples below $(DESTDIR)$(PREFIX)
# make uninstall  takes away what make install put there
# make check      runs the tests outside the gate

PREFIX = /usr/local
DESTDIR =
PROGRAM = crates/cqe/out/cqe

.PHONY: all install uninstall check

all:
	./cqe case < /dev/null

install:
	contrib/install put "$(PROGRAM)" "$(PREFIX)" "$(DESTDIR)"

uninstall:
	contrib/install remove "$(PREFIX)" "$(DESTDIR)"

check:
	tests/run
