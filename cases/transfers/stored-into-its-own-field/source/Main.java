// An object may be its own field: what is opened behind the field is open.

class F {
    F next;
    void open() {}
    void read() {}
}

final class Main {
    static F make() {
        return new F();
    }

    public static void main(String[] words) {
        make();
        F a = make();
        a.next = a;
        a.next.open();
        a.read();
    }
}
