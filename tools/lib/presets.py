"""What each preset gives a configuration."""

PRESETS = {
    'local': {
        'tracked_peer_sets': 4,
        'send_batch_size': 8,
        'ping_frequency': 5_000_000_000,
        'allow_private_ips': True,
        'allow_dns': True,
        'bypass_ip_check': False,
        'peer_connection_cooldown': 1_000_000_000,
        'block_duration': 3_600_000_000_000,
        'max_concurrent_handshakes': 1024,
        'allowed_handshake_rate_per_ip': {'burst': 16, 'period': 62_500_000},
        'allowed_handshake_rate_per_subnet': {'burst': 128, 'period': 7_812_500},
        'handshake_timeout': 5_000_000_000,
        'dial_timeout': 15_000_000_000,
        'dial_frequency': 500_000_000,
    },
    'recommended': {
        'tracked_peer_sets': 4,
        'send_batch_size': 8,
        'ping_frequency': 50_000_000_000,
        'allow_private_ips': False,
        'allow_dns': True,
        'bypass_ip_check': False,
        'peer_connection_cooldown': 60_000_000_000,
        'block_duration': 14_400_000_000_000,
        'max_concurrent_handshakes': 512,
        'allowed_handshake_rate_per_ip': {'burst': 1, 'period': 5_000_000_000},
        'allowed_handshake_rate_per_subnet': {'burst': 64, 'period': 15_625_000},
        'handshake_timeout': 5_000_000_000,
        'dial_timeout': 15_000_000_000,
        'dial_frequency': 1_000_000_000,
    },
}


def whole_configuration(said):
    """A configuration with what its preset gives where it says nothing itself."""
    return {**PRESETS[said['preset']], **said}
