"""What builds `./cca` and `./trial`, packs a release, and makes the site and what is drawn."""
