"""rtpengine's NG protocol for a gateway: see docs/kamailio.md, and `__main__.py` for the program."""
