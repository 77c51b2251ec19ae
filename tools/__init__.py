"""Commands of the checkout, and modules that the tests use too."""
