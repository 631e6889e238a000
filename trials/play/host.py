"""Answers the scripts of this folder."""

from bustlebrick import Fault

reg = 10


class Cell:
    def __init__(self, number):
        self.number = number
        self.weight = 1

    def get(self):
        return self.number

    def set(self, number):
        self.number = number


def print(number):
    if number < 0:
        raise ValueError("only numbers from 0 on are printed")


def sum(a, b):
    return a + b


def stop(number):
    raise Fault(number)


def open():
    return True
