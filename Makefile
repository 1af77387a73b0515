# make            prove the library (if it is not proved yet, or a crate has changed) and build the host into target/host
# make run        the same, then start the host with an example roster and show a panel's handshake and the table
# make test       the host's tests, on loopback
# make install    DESTDIR= PREFIX=/usr/local; make uninstall takes it away again
# make clean      remove target/, the proved library too
all: host

host:
	$(MAKE) -C host

test install uninstall:
	$(MAKE) -C host $@

# the port first: nobody waits for a proof to be told that the port is in use
run:
	@bash host/demo.sh --port-free
	@$(MAKE) --silent --no-print-directory -C host
	@bash host/demo.sh

clean:
	rm -rf target

.PHONY: all host test install uninstall run clean
.NOTPARALLEL:
