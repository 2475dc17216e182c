# The command line tool and the install: included by the Makefile at the top, which makes the archive.
#   make cli                       build/lanyardrove
#   make cli-test                  runs the tool as a user would; the report is opened in Chromium unless CLI_NO_BROWSER=1
#   make install PREFIX= DESTDIR=  the archive, header, files for pkg-config and CMake, tool, manual page and completion
#   make uninstall PREFIX= DESTDIR=
#   make dockerfile                runs the steps of the Dockerfile, as root, with debootstrap
#   make deb                       build/lanyardrove_VERSION_amd64.deb, a Debian package of the same

PREFIX ?= /usr/local
DESTDIR ?=
PKG_CONFIG ?= pkg-config
PYTHON ?= python3

# another folder and other flags make a second build, for example with sanitizers
CLI_BUILD ?= build
CLI_CFLAGS ?= -O2 -g
CLI_LIBRARIES = libpng jansson
CLI_FLAGS = -std=c11 -pedantic $(WARNINGS) -Iinclude $(shell $(PKG_CONFIG) --cflags $(CLI_LIBRARIES))
CLI_OBJECTS = $(patsubst cli/%.c,$(CLI_BUILD)/cli/%.o,$(sort $(wildcard cli/*.c)))
CLI_TOOL = $(CLI_BUILD)/lanyardrove

.PHONY: cli cli-libraries cli-test install uninstall deb dockerfile

cli: $(CLI_TOOL)

$(CLI_TOOL): $(CLI_OBJECTS) $(ARCHIVE)
	$(CC) $(CLI_CFLAGS) $(LDFLAGS) -o $@ $(CLI_OBJECTS) $(ARCHIVE) $(shell $(PKG_CONFIG) --libs $(CLI_LIBRARIES))

$(CLI_BUILD)/cli/%.o: cli/%.c $(wildcard cli/*.h) include/lanyardrove.h | cli-libraries
	@mkdir -p $(@D)
	$(CC) $(CLI_CFLAGS) $(CPPFLAGS) $(CLI_FLAGS) -c -o $@ $<

cli-libraries:
	@$(PKG_CONFIG) --exists $(CLI_LIBRARIES) || { echo 'The tool needs libpng and jansson: apt-get install libpng-dev libjansson-dev pkg-config' >&2; exit 1; }

cli-test: $(CLI_TOOL)
	$(PYTHON) cli/tests/run.py $(CLI_TOOL)

# The C functions: each has a manual page, made of the header.
CLI_FUNCTIONS = $(shell sed -n 's/^uint[0-9]*_t \(lanyardrove_[a-z_]*\).*/\1/p' include/lanyardrove.h)

# Each installed file, under $(DESTDIR)$(PREFIX), and what it is a copy of.
CLI_PC = $(CLI_BUILD)/lanyardrove.pc
CLI_CMAKE_VERSION = $(CLI_BUILD)/lanyardrove-config-version.cmake
CLI_INSTALL = bin/lanyardrove=$(CLI_TOOL) lib/liblanyardrove.a=$(ARCHIVE) lib/pkgconfig/lanyardrove.pc=$(CLI_PC) \
    lib/cmake/lanyardrove/lanyardrove-config.cmake=cli/lanyardrove-config.cmake \
    lib/cmake/lanyardrove/lanyardrove-config-version.cmake=$(CLI_CMAKE_VERSION) \
    include/lanyardrove.h=include/lanyardrove.h share/man/man1/lanyardrove.1=cli/lanyardrove.1 \
    share/bash-completion/completions/lanyardrove=cli/lanyardrove.bash share/zsh/site-functions/_lanyardrove=cli/lanyardrove.zsh \
    share/fish/vendor_completions.d/lanyardrove.fish=cli/lanyardrove.fish \
    $(foreach page,lanyardrove $(CLI_FUNCTIONS),share/man/man3/$(page).3=$(CLI_BUILD)/man3/$(page).3)

# A prefix is absolute, since pkg-config and DESTDIR go by it. In the pkg-config file a space in it is escaped, and the signs that sed reads are here.
CLI_PREFIX_CHECK = case "$(PREFIX)" in /*) ;; *) echo 'PREFIX is an absolute path: PREFIX=/usr' >&2; exit 1 ;; esac

CLI_VERSION = $$($(CLI_TOOL) --version | cut -d' ' -f2)

# $(call cli_install,DESTDIR,PREFIX)
define cli_install
	mkdir -p $(CLI_BUILD)/man3 && awk -v folder=$(CLI_BUILD)/man3 -f cli/man3.awk include/lanyardrove.h
	version=$(CLI_VERSION) && prefix=$$(printf '%s' "$(2)" | sed -e 's/ /\\ /g' -e 's/[\\&|]/\\&/g') && \
	    sed -e "s|@PREFIX@|$$prefix|" -e "s|@VERSION@|$$version|" cli/lanyardrove.pc.in > $(CLI_PC) && \
	    sed "s|@VERSION@|$$version|" cli/lanyardrove-config-version.cmake.in > $(CLI_CMAKE_VERSION)
	set -e; for pair in $(CLI_INSTALL); do \
	    case $$pair in bin/*) mode=755 ;; *) mode=644 ;; esac; \
	    install -D -m $$mode "$${pair#*=}" "$(1)$(2)/$${pair%%=*}"; \
	done
endef

install: $(CLI_TOOL)
	@$(CLI_PREFIX_CHECK)
	$(call cli_install,$(DESTDIR),$(PREFIX))

# The steps of the Dockerfile, in a root that debootstrap makes; outside the gate, since it fetches a whole system.
dockerfile: $(CLI_TOOL)
	rm -rf build/installed
	$(call cli_install,build/installed,/usr)
	bash tools/dockerfile

# A Debian package. It depends on the packages that the tool's libraries are of, here where it is built.
CLI_DEB = $(CLI_BUILD)/deb

deb: $(CLI_TOOL)
	rm -rf $(CLI_DEB)
	$(call cli_install,$(CLI_DEB),/usr)
	mkdir -p $(CLI_DEB)/DEBIAN
	libraries=$$(objdump -p $(CLI_TOOL) | awk '$$1 == "NEEDED" { print $$2 }') && \
	    depends=$$(for name in $$libraries; do dpkg -S "*/$$name" | head -n 1 | cut -d: -f1; done | sort -u | paste -sd, | sed 's/,/, /g') && \
	    sed -e "s|@VERSION@|$(CLI_VERSION)|" -e "s|@DEPENDS@|$$depends|" -e "s|@ARCHITECTURE@|$$(dpkg --print-architecture)|" \
	        cli/control.in > $(CLI_DEB)/DEBIAN/control
	dpkg-deb --root-owner-group --build $(CLI_DEB) $(CLI_BUILD)

uninstall:
	@$(CLI_PREFIX_CHECK)
	set -e; for pair in $(CLI_INSTALL); do rm -f "$(DESTDIR)$(PREFIX)/$${pair%%=*}"; done
