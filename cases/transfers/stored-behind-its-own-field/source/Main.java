// A store adds no path of its value that holds the field that it writes: where both are one object, that path leads to
// the object itself.

class F {
    F next;
    void open() {}
    void read() {}
}

final class Main {
    static F make() {
        return new F();
    }

    public static void main(String[] words) {
        F b = make();
        F[] box = {b};
        F a = make();
        b.next = a;
        F c = box[0];
        c.next = b;
        c.next.next.open();
        a.read();
    }
}
