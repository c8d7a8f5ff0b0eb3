"""The tests, in folders by what they try; `tests/support` has what they share."""
