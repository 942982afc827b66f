# Builds the programs, proved, into bin/, and runs a domain of three machines on the loopback address.

PROGRAMS = nt_controller nt_member nt_logon

.PHONY: demo bench cases programs $(PROGRAMS)

demo: programs
	@demo/run.sh bin
	@demo/few_descriptors.sh bin
	@demo/kept_secret.sh bin
	@demo/changed_secret.sh bin
	@demo/sealed_channel.sh bin
	@demo/trusted_logon.sh bin
	@demo/lost_trust.sh bin
	@demo/station.sh bin

# How long each operation takes on this machine: lines `ours OPERATION NANOSECONDS`, and where their headers are there,
# the same of OpenSSL and nettle for the operations on DES.
bench:
	@cd crates/nt_bench && rt run -- measure ours
	@mkdir -p bin
	@if cc -O2 -o bin/peers bench/peers.c -lcrypto -lnettle 2>/dev/null; then bin/peers; fi

programs: $(PROGRAMS)

# The lines and answers of the case programs, from the published values.
cases:
	@python3 cases/make.py

# A program is proved, built and run on its stored arguments, which end with its stored status or 0, before it is
# copied.
$(PROGRAMS):
	@mkdir -p bin
	@cd crates/$@ && { rt run -- $$(cat args) > /dev/null; test $$? -eq $$(cat status 2>/dev/null || echo 0); }
	@cp crates/$@/out/$@ bin/$@
