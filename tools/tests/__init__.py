"""Tests of tools/proofs: python3 -m unittest discover -s tools/tests -t tools"""
