# make: builds the programs; make install [PREFIX=/usr/local]; make deb: a Debian package of them;
# make try-tests: the tests of gtrbac alone, nothing proved; make test: the gate; make check-planted: further
# wrong bodies; make docs: what the documents show; make check-stop: that a stop keeps the log;
# make check-poll: that a thousand clients of one port are told what the log has;
# make check-views: that each reply of a viewer is the model's after a prefix of the log
PREFIX = /usr/local

all:
	bin/build

install:
	bin/install $(PREFIX)

deb:
	bin/deb

try-tests:
	bin/try-tests

test:
	.ci/run

check-planted:
	bin/check-planted

docs:
	bin/check-docs

check-stop:
	bin/check-stop

check-poll:
	bin/check-poll

check-views:
	bin/check-views

.PHONY: all install deb try-tests test check-planted docs check-stop check-poll check-views
