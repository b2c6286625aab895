"""How the desks of this machine are, for whoever asks: /health and the figures that Prometheus reads."""
