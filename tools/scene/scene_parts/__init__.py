"""The parts of the module `scene`, by topic. Scripts import `scene`, which hands them on."""
