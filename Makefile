# What there is to build and run; README.md says more.
lib:       # crates/vault_c/out/libvault_c.a, proved first; include/vault.h declares its functions
	cd crates/vault_c && rt lib

test:      # the gate: all proofs, all must-fail edits, all programs
	.ci/run

search:    # the search program on the small vault of document 01
	./search crates/vault_search/data

.PHONY: lib test search
