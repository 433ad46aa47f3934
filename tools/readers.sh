#!/usr/bin/env bash
# Installs the programs that tests/readers.py gives files to, and the Slurm of tests/slurm.py, from Debian's packages (as root). The tests take those that
# are there, and say which aren't.
set -eu
apt-get update -qq
apt-get install -y -qq --no-install-recommends osmium-tool python3-pyosmium osmctools osmpbf-bin osmosis mkgmap-splitter gdal-bin tilemaker slurm-wlm
