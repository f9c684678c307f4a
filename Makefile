# `make board` builds the tool, the static and the shared library into target/board; `make install PREFIX=..` puts them, the header and board.pc there.
CC = gcc
CFLAGS = -std=gnu11 -O2 -Wall -Wextra -Werror $(SANITIZE)
PREFIX = /usr/local
BUILD = target/board
ENGINE = crates/board/out/libboard.a
TOOL = $(filter-out tool/words.c,$(wildcard tool/*.c))
VERSION = $(shell sed -n 's/^.define BOARD_VERSION "\(.*\)"/\1/p' include/board.h)

.PHONY: board install

board: $(BUILD)/board $(BUILD)/libboard.so

install: board
	install -d $(DESTDIR)$(PREFIX)/bin $(DESTDIR)$(PREFIX)/include $(DESTDIR)$(PREFIX)/lib/pkgconfig
	install -m 755 $(BUILD)/board $(DESTDIR)$(PREFIX)/bin/board
	install -m 644 include/board.h $(DESTDIR)$(PREFIX)/include/board.h
	install -m 644 $(BUILD)/libboard.a $(DESTDIR)$(PREFIX)/lib/libboard.a
	install -m 755 $(BUILD)/libboard.so $(DESTDIR)$(PREFIX)/lib/libboard.so
	sed -e 's,@PREFIX@,$(PREFIX),' -e 's,@VERSION@,$(VERSION),' include/board.pc.in > $(DESTDIR)$(PREFIX)/lib/pkgconfig/board.pc

$(ENGINE): $(wildcard crates/*/src/*.rt)
	cd crates/board && rt lib
	touch $@

$(BUILD)/words.o: tool/words.c include/board.h
	@mkdir -p $(BUILD)
	$(CC) $(CFLAGS) -fPIC -c -o $@ $<

$(BUILD)/libboard.a: $(ENGINE) $(BUILD)/words.o
	cp $(ENGINE) $@
	ar rs $@ $(BUILD)/words.o 2> /dev/null

$(BUILD)/libboard.so: $(BUILD)/libboard.a
	$(CC) -shared -o $@ -Wl,--whole-archive $< -Wl,--no-whole-archive

$(BUILD)/board: $(TOOL) $(wildcard tool/*.h) include/board.h $(BUILD)/libboard.a
	$(CC) $(CFLAGS) -o $@ $(TOOL) $(BUILD)/libboard.a
