// A store adds no path with more fields than the depth says: what is opened behind four fields is not known.

class F {
    void open() {}
    void read() {}
}

class Third {
    F f;
}

class Second {
    Third third;
}

class First {
    Second second;
}

class Outermost {
    First first;
}

final class Main {
    static F make() {
        return new F();
    }

    public static void main(String[] words) {
        Third third = new Third();
        Second second = new Second();
        First first = new First();

        Outermost outermost = new Outermost();
        make();
        F a = make();
        third.f = a;
        second.third = third;
        first.second = second;
        outermost.first = first;
        outermost.first.second.third.f.open();
        a.read();
    }
}
