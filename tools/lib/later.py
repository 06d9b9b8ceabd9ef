"""What a script will be able to ask for, and the program does not run yet."""

ACTS = frozenset('''
    fault
    raw_dial raw_accept raw_write raw_read raw_close
    mux mux_register mux_poll give_up sub_send sub_recv sub_close global_send backup_recv mux_step
'''.split())
