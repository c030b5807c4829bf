"""Programs and the library built without a proof, kept proofs, and what an archive of them is made of."""
