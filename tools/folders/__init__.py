"""Folders of files of any length on homes of hail: hail-sftp and git-annex-remote-hail.

`home` runs hail's commands, `manifest` is the form of a stored file, `shared` what several programs over one set share, `homes` tells which
homes are a set, `copies` copies their journals, `pieces` stores and reads bytes, `store` keeps files, `writer` takes one that is written,
`protocol` answers requests of SFTP, which paramiko reads and writes, `sftp` and `annex` are the programs.
"""
