"""The programs beside a desk, and its client for those who write more. Python 3.11's standard
library alone, but for the gateway, which takes paho-mqtt for MQTT."""

__version__ = '0.1.0'
