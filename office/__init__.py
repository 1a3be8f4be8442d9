"""The club's office: all that happens between the players' mailboxes and the proved program."""
