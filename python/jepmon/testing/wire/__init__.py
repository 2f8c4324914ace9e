"""The protocols of servers, as far as their clients need them."""
