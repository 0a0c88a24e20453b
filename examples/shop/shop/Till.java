package shop;

public class Till {
    private Cart cart;

    void open() {
        try {
            cart.open();
        } catch (IllegalStateException e) {
        }
    }

    void pay(int amount) {
        System.out.println(amount); // NOPMD: the till prints receipts
        while (amount > 0)
            amount = cart.pay(amount);
    }

    @SuppressWarnings("PMD.SystemPrint")
    void close() {
        System.err.print("closed");
    }
}
