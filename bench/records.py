"""The program that `Vcf::read` is measured against: it reads the records of a factor file."""

import csv
import sys

print(sum(1 for _ in csv.reader(sys.stdin)) - 1)
