"""Scripts that run built programs and end with status 0 where all is as it should be. `./test` runs them."""
