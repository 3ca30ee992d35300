"""The operations, and the device ids of the two families."""

# Each operation and the kinds of its arguments (KINDS in texts.py).
OPERATIONS = {
    'veto': '',
    'link': '',
    'acquire': 'mask',
    'release': 'mask',
    'command': 'block',
    'token': 'truth',
    'phy_activity': 'half word word word word',
    'read_reg': 'phy device half',
    'mdio_list': 'phy pairs',
    'write_reg': 'phy device half half',
    'modify': 'phy device half half half',
    'probe': 'phy',
    'scan': '',
    'reset': 'phy truth',
    'abilities': 'phy',
    'advertise': 'phy truth truth truth option_truth truth',
    'an_link': 'phy',
    'kr_read': 'address',
    'kr_write': 'address word',
    'kr_modify': 'address word word',
    'restart_an': '',
    'kr_autoneg': 'truth truth',
    'nvm_word': 'half',
    'after_reset': '',
    'bringup': 'truth',
    'poll': 'phy place option_half word windows',
}
DEVICES = {
    'X552': '15aa 15ab 15ac 15ad 15ae 15b0'.split(),
    'X553': '15c2 15c3 15c4 15c6 15c7 15c8 15ce 15e4 15e5'.split(),
}
FIBER = {('X552', '15ac'), ('X553', '15c4'), ('X553', '15ce')}


def has_block(name):
    """Are the arguments a host block, of as many words as the caller likes?"""
    return OPERATIONS.get(name) == 'block'


def has_pairs(name):
    """Are they pairs of device and register, behind the others?"""
    return OPERATIONS.get(name, '').endswith('pairs')
