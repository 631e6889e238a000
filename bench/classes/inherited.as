// ticks 5000002
// answer 3124998750000
// A method of a class two above the object's own, each of the three with twenty methods more.
class Thing {
    int64 total;

    void add(int64 n) {
        total += n;
    }

    void thing1() {}
    void thing2() {}
    void thing3() {}
    void thing4() {}
    void thing5() {}
    void thing6() {}
    void thing7() {}
    void thing8() {}
    void thing9() {}
    void thing10() {}
    void thing11() {}
    void thing12() {}
    void thing13() {}
    void thing14() {}
    void thing15() {}
    void thing16() {}
    void thing17() {}
    void thing18() {}
    void thing19() {}
    void thing20() {}
}

class Actor : Thing {
    void actor1() {}
    void actor2() {}
    void actor3() {}
    void actor4() {}
    void actor5() {}
    void actor6() {}
    void actor7() {}
    void actor8() {}
    void actor9() {}
    void actor10() {}
    void actor11() {}
    void actor12() {}
    void actor13() {}
    void actor14() {}
    void actor15() {}
    void actor16() {}
    void actor17() {}
    void actor18() {}
    void actor19() {}
    void actor20() {}
}

class Player : Actor {
    void player1() {}
    void player2() {}
    void player3() {}
    void player4() {}
    void player5() {}
    void player6() {}
    void player7() {}
    void player8() {}
    void player9() {}
    void player10() {}
    void player11() {}
    void player12() {}
    void player13() {}
    void player14() {}
    void player15() {}
    void player16() {}
    void player17() {}
    void player18() {}
    void player19() {}
    void player20() {}
}

int64 main() {
    Player player;
    for (int i = 0; i < 2500000; i++) {
        player.add(i);
    }
    return player.total;
}
