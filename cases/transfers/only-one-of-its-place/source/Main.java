// An event on the only object of its place tells that the receiver has it, and each local that has the same: so it is
// known when there are more objects of the place.

class F {
    void open() {}
    void close() {}
}

final class Main {
    static F make() {
        return new F();
    }

    public static void main(String[] words) {
        F[] box = {make()};
        F a = box[0];
        a.open();
        make();
        a.close();
        a.open();
    }
}
