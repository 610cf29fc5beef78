"""The parts of checks/random-play: messages, the model of the rules, messages at random, and a round."""
