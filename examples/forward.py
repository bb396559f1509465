#!/usr/bin/env python3
"""Runs `lambda_forward` of `deploy/`, which forwards a broker's records: its own head has the words."""
import os
import sys

HERE = os.path.dirname(os.path.abspath(__file__))

program = os.path.join(HERE, "..", "deploy", "lambda_forward")
os.execv(sys.executable, [sys.executable, program, *sys.argv[1:]])
