// Where a store would add a path with more fields than the depth says, another cell may hold the object: what the array
// may hold is closed.

class F {
    void read() {}
    void close() {}
}

class Third {
    F f;
}

class Second {
    Third third;
}

class First {
    Second second;
}

class Outermost {
    First first;
}

final class Main {
    public static void main(String[] words) {
        Third third = new Third();
        Second second = new Second();
        First first = new First();
        Outermost outermost = new Outermost();
        F a = new F();
        F[] box = new F[1];
        if (words.length > 1) {
            // So the array may have it, for whoever does not look at the order.
            box[0] = a;
            return;
        }
        third.f = a;
        second.third = third;
        first.second = second;
        outermost.first = first;
        box[0].close();
        a.read();
    }
}
