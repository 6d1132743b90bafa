#!/usr/bin/python3
"""As hail-remote, with sessions of so many bytes of requests: short_sessions.py BYTES HAIL-REMOTE HOME WORD .."""
import importlib.machinery
import importlib.util
import sys

loader = importlib.machinery.SourceFileLoader('hail_remote', sys.argv[2])
spec = importlib.util.spec_from_loader('hail_remote', loader)
assert spec
sys.dont_write_bytecode = True
module = importlib.util.module_from_spec(spec)
loader.exec_module(module)
setattr(module, 'SESSION', int(sys.argv[1]))
sys.exit(module.main(sys.argv[3:]))
