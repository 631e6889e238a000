class Node {
	int value;
	Node@ next;
}
class Cat { Dog@ friend; }
class Dog { Cat@ friend; }
class Box { Cell@ cell; Node@ node; }
