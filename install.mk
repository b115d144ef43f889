# make install and make uninstall, for the Makefile to include; it has the rules for $(LIB) and hexline.
# BUILT=1 installs what stands in target/, without rt.
PREFIX = /usr/local
INTO = $(DESTDIR)$(PREFIX)

HEADER = include/rivetgnome.h
version = $(shell awk '$$2 == "RG_VERSION_$(1)" { print $$3 }' $(HEADER))
MAJOR := $(call version,MAJOR)
VERSION := $(MAJOR).$(call version,MINOR).$(call version,PATCH)
SONAME = librivetgnome.so.$(MAJOR)
SO = target/so/librivetgnome.so.$(VERSION)

.PHONY: install uninstall prefix so test-install

prefix:
	@case '$(PREFIX)' in /*) ;; *) echo 'PREFIX must begin with /' >&2; exit 1 ;; esac

# The functions that the header declares are visible, and nothing else; one that the archive lacks stops the link.
so: $(if $(BUILT),,$(LIB))
	@mkdir -p target/so
	@{ echo '{ global:'; sed -n 's/^[a-z].* \(rg_[a-z0-9_]*\)(.*/\1;/p' $(HEADER); echo 'local: *; };'; } >target/so/map
	@gcc -shared -nostdlib -o $(SO) -Wl,-soname,$(SONAME),--version-script=target/so/map,--no-undefined-version,-z,defs,-z,noexecstack \
		-Wl,--whole-archive $(LIB) -Wl,--no-whole-archive

install: prefix $(if $(BUILT),,$(LIB) hexline)
	@if command -v gcc >/dev/null; then $(MAKE) -s so BUILT=1; else rm -f $(SO); echo 'skipped: librivetgnome.so (Debian package gcc)'; fi
	@mkdir -p '$(INTO)/include' '$(INTO)/lib/pkgconfig' '$(INTO)/bin'
	@install -m 644 $(HEADER) '$(INTO)/include'
	@install -m 644 $(LIB) '$(INTO)/lib'
	@if [ -f $(SO) ]; then \
		install -m 755 $(SO) '$(INTO)/lib' && \
		ln -sf librivetgnome.so.$(VERSION) '$(INTO)/lib/$(SONAME)' && \
		ln -sf $(SONAME) '$(INTO)/lib/librivetgnome.so'; \
	fi
	@printf '%s\n' 'prefix=$(PREFIX)' 'includedir=$${prefix}/include' 'libdir=$${prefix}/lib' '' \
		'Name: rivetgnome' 'Description: The integer part of the H3 grid index, proved' 'Version: $(VERSION)' \
		'Cflags: -I$${includedir}' 'Libs: -L$${libdir} -lrivetgnome' >'$(INTO)/lib/pkgconfig/rivetgnome.pc'
	@install -m 755 target/bin/hexline '$(INTO)/bin'

uninstall: prefix
	@rm -f '$(INTO)/include/rivetgnome.h' '$(INTO)/lib/librivetgnome.a' '$(INTO)/lib/librivetgnome.so.$(VERSION)' \
		'$(INTO)/lib/$(SONAME)' '$(INTO)/lib/librivetgnome.so' '$(INTO)/lib/pkgconfig/rivetgnome.pc' '$(INTO)/bin/hexline'

test-install: $(LIB) hexline
	@tests/install.sh
