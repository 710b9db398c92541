"""`./class`: a class on self-stabilising algorithms, from its list of names to its marks. Every fact that its commands
and pages show comes from a reply of the proved program, `mml`."""
