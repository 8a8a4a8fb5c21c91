# The definition against the oracle's answers, computed by the checker; not part of `make test`.
# More cases: make definition-check CASES=20000 SEED=2
CASES ?= 3000
SEED ?= 1

.PHONY: definition-check
definition-check:
	python3 tools/definition_check.py --count $(CASES) --seed $(SEED)
