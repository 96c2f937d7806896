// A path may have as many fields as the depth says: what is opened behind three fields is open.

class F {
    void open() {}
    void read() {}
}

class Third {
    F f;
}

class Second {
    Third third;
}

class First {
    Second second;
}

final class Main {
    static F make() {
        return new F();
    }

    public static void main(String[] words) {
        Third third = new Third();
        Second second = new Second();
        First first = new First();

        make();
        F a = make();
        third.f = a;
        second.third = third;
        first.second = second;
        first.second.third.f.open();
        a.read();
    }
}
