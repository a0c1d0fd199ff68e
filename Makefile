# make            the archive of the C calls, and the examples
# make example    examples/session, and examples/prompt, a prompt with Tab completion
# make test       the C calls from C, the prompt typed into in a pseudo-terminal, and an installation that is used
# make install    header, archive, pkg-config file, program and manual pages below PREFIX (DESTDIR in front of it)
# make uninstall  takes them away
# make fuzz       the C calls under libFuzzer for SECONDS seconds, from seeds, with address and undefined-behaviour sanitizers on the C side;
#                 prints how often each call gave each answer
CC ?= cc
CFLAGS ?= -O2 -g
FLAGS = -std=c11 -D_POSIX_C_SOURCE=200809L -Wall -Wextra -Werror -Iinclude
ARCHIVE = target/staticlib/libscreen.a
PROGRAM = target/bin/console
CRATES := crates.txt $(shell find crates -name '*.rt' -o -name '*.antt')
VERSION = 0.5.0
PREFIX ?= /usr/local
TO = $(DESTDIR)$(PREFIX)

.PHONY: all example readline test install uninstall absolute fuzz clean
all: $(ARCHIVE) example
example: examples/session examples/prompt

$(ARCHIVE): $(CRATES)
	bash tools/build screen
	@touch $@

$(PROGRAM): $(CRATES)
	bash tools/build console
	@touch $@

examples/session: examples/session.c include/name_console.h $(ARCHIVE)
	$(CC) $(FLAGS) $(CFLAGS) examples/session.c $(ARCHIVE) -o $@

examples/prompt: examples/prompt.c include/name_console.h $(ARCHIVE) | readline
	$(CC) $(FLAGS) $(CFLAGS) examples/prompt.c $(ARCHIVE) -lreadline -o $@

# The prompt alone needs GNU readline.
readline:
	@printf '#include <stdio.h>\n#include <readline/readline.h>\nint main(void) { return readline == 0; }\n' \
	  | $(CC) -x c - -lreadline -o /dev/null 2>/dev/null \
	  || { echo "examples/prompt needs GNU readline and its headers: apt-get install libreadline-dev" >&2; exit 1; }

test: $(ARCHIVE) $(PROGRAM)
	python3 tests/prompt
	python3 tests/install

# The pkg-config file names the prefix, so that has to be a whole path.
absolute:
	@case '$(PREFIX)' in /*) ;; *) echo "PREFIX has to begin with /" >&2; exit 1 ;; esac

install: $(ARCHIVE) $(PROGRAM) | absolute
	install -d '$(TO)/include' '$(TO)/lib/pkgconfig' '$(TO)/bin' '$(TO)/share/man/man1' '$(TO)/share/man/man3'
	install -m 644 include/name_console.h '$(TO)/include/name_console.h'
	install -m 644 $(ARCHIVE) '$(TO)/lib/libname_console.a'
	sed -e 's|@PREFIX@|$(PREFIX)|' -e 's|@VERSION@|$(VERSION)|' include/name_console.pc.in >'$(TO)/lib/pkgconfig/name_console.pc'
	install -m 755 $(PROGRAM) '$(TO)/bin/console'
	install -m 644 man/console.1 '$(TO)/share/man/man1/console.1'
	install -m 644 man/name_console.3 '$(TO)/share/man/man3/name_console.3'

uninstall: | absolute
	rm -f '$(TO)/include/name_console.h' '$(TO)/lib/libname_console.a' '$(TO)/lib/pkgconfig/name_console.pc' '$(TO)/bin/console' \
	  '$(TO)/share/man/man1/console.1' '$(TO)/share/man/man3/name_console.3'

SECONDS ?= 60
fuzz: $(ARCHIVE)
	@mkdir -p target/fuzz/corpus
	python3 fuzz/seeds.py target/fuzz
	clang -std=c11 -g -O1 -Wall -Wextra -Werror -Iinclude -fsanitize=fuzzer,address,undefined -fno-sanitize-recover=all \
	  fuzz/screen.c $(ARCHIVE) -o target/fuzz/screen
	target/fuzz/screen -max_len=600 -max_total_time=$(SECONDS) -dict=target/fuzz/screen.dict target/fuzz/corpus target/fuzz/seeds

clean:
	rm -f examples/session examples/prompt
