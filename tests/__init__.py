"""The tests of what is built, by subject. `./test` runs them all after the proofs. CONTRIBUTING.md says how to run one."""
